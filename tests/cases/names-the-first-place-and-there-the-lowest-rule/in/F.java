class F { }
class F { }
class G<T> { }
