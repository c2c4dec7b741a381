class A { java.lang.String s; }
