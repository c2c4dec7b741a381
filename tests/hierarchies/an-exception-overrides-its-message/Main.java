class E extends Exception {
    E(String s) { super(s); System.out.println("E(String)"); }
    public String getMessage() { System.out.println("E.getMessage()"); return "E of " + super.getMessage(); }
}

class Main {
    public static void main(String[] args) {
        Throwable x = new E("a");
        System.out.println(x.getMessage());
        try {
            throw new E("b");
        } catch (Exception e) {
            System.out.println(e.getMessage());
        }
    }
}
