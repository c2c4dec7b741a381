class Letters {
  public static void main(String[] x) {
    String s = "abc\tdef\\\"\'A\101\7";
    System.out.println(s.length());
    System.out.println(s.charAt(3) + 0 + s.charAt(12));
    System.out.println("é" + "é".length() + '€' + "中" + (int) '中');
    String two = "😀";
    System.out.println(two + two.length() + (int) two.charAt(0));
    System.out.print("line\nfeed\r\n");
    System.out.println("\0".length() + (int) '\377' + '\b');
    char c = 'a';
    c += 1;
    c++;
    System.out.println(c);
    c = (char) -1;
    System.out.println((int) c);
    c++;
    System.out.println((int) c);
  }
}
