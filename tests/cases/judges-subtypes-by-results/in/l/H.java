package l;
interface Iterable<T> { }
interface Collection<E> extends Iterable<E> { }
interface List<E> extends Collection<E> { }
class AbstractList<E> implements List<E> { }
class ArrayList<E> extends AbstractList<E> implements List<E> { }
interface Comparable<T> { }
interface CharSequence { }
class Word implements Comparable<Word>, CharSequence { }
class Names extends ArrayList<Word> { }
class Pair<A, B> { }
class Swapped<A, B> extends Pair<B, A> { }
class Plain implements Comparable<Plain> { }
class Crate<T> extends Plain { }
