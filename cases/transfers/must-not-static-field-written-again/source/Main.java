// That a static field does not have the object is forgotten when it is written: it gets the object from an array, and
// that is closed.

class F {
    void read() {}
    void close() {}
}

final class Main {
    static F kept;

    static F make() {
        return new F();
    }

    public static void main(String[] words) {
        F a = make();
        F[] box = {a};
        kept = make();
        kept = box[0];
        kept.close();
        a.read();
    }
}
