interface I {
    int on();
}
