// What a callee throws has the paths of the thrown value at the caller's handler: what is opened there is the object.

class F extends RuntimeException {
    void open() {}
    void read() {}
}

final class Main {
    static F kept;

    static F make() {
        return new F();
    }

    static void fail(F f) {
        throw f;
    }

    public static void main(String[] words) {
        make();
        F a = make();
        kept = a;
        try {
            fail(a);
        } catch (F b) {
            b.open();
            kept.read();
        }
    }
}
