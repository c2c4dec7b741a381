class String { }
