class A { Object o = (java.lang.String) null; }
