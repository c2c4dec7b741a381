interface Ringing {
    void ring();
}
