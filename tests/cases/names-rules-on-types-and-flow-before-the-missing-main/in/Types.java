class Types { int f = "text"; }
