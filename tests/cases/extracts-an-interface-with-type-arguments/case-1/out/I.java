interface I {
    int on(I other);
}
