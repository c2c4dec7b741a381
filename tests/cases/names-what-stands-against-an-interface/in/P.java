class C { public void on() { } void hidden() { } public static void fixed() { } }
class M { void m() { } }
