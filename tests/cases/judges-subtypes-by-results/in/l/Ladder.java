package l;
class S { }
interface Two<X, Y> { }
interface Turned<X, Y> extends Two<Y, X> { }
interface Half<T> extends Turned<T, S> { }
interface Full extends Half<Object> { }
interface BelowFull<T> extends Full { }
interface RawTwice<T> extends BelowFull<T> { }
interface StillHalf<T> extends Half<T> { }
interface Joined<T> extends StillHalf<T>, Two<S, T> { }
