interface I { int m(); }
interface J { long m(); }
interface K extends I, J { }
