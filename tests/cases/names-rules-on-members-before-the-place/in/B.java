class B { void m() { } }
