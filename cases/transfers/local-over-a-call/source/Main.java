// The paths of the caller's locals stay over a call: what was closed before it is what is read after it.

class F {
    void read() {}
    void close() {}
}

final class Main {
    static void nothing() {}

    public static void main(String[] words) {
        F a = new F();
        a.close();
        nothing();
        a.read();
    }
}
