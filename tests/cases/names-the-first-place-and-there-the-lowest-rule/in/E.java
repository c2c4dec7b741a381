class E { void wait() { java.lang.String s; } static int b = 1 + 1; }
