class A { float f; }
// a \u0041
