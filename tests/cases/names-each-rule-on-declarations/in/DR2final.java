class A extends String { }
