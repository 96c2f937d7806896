// A static field may be known not to have the object: the newer one is closed there, and the older one stays open.

class F {
    void read() {}
    void close() {}
}

final class Main {
    static F kept;

    static F make() {
        return new F();
    }

    public static void main(String[] words) {
        F a = make();
        F[] box = {a};
        kept = make();
        kept.close();
        a.read();
    }
}
