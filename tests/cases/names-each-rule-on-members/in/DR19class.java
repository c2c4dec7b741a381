interface I { int m(); }
interface J { Object m(); }
abstract class K implements I, J { }
