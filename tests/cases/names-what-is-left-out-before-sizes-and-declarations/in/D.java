class D { public boolean equals(Object o) { return true; } int hashCode() { return 1; } }
interface E { int clone(); }
