class A { { class B { } }
