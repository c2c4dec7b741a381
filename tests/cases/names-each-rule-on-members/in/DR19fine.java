interface I { Object m(); }
interface J { String m(); }
interface K extends I, J { }
