class E { int hashCode() { return 1; } }
