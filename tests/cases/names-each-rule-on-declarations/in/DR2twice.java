interface I { }
interface J { }
class B implements I, J, I { }
