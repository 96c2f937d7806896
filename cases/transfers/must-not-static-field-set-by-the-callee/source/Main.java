// After a call it is the callee that says which static fields do not have the object: it stored the newer one.

class F {
    void read() {}
    void close() {}
}

final class Main {
    static F kept;

    static F make() {
        return new F();
    }

    static void keep(F f) {
        kept = f;
    }

    public static void main(String[] words) {
        F a = make();
        F[] box = {a};
        keep(make());
        kept.close();
        a.read();
    }
}
