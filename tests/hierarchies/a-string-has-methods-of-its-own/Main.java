class A { }

class Main {
    public static void main(String[] args) {
        Object x = "abc";
        System.out.println(x.toString());
        System.out.println(x.equals("ab" + "c"));
        System.out.println(x.hashCode());
        Throwable y = new RuntimeException("why");
        System.out.println(y.getMessage());
    }
}
