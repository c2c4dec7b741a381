package l;
interface A extends Pair<A, A> { }
class B implements A, Pair<A, B> { }
