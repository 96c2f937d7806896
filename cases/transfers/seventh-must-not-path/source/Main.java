// Of paths that do not lead to the object six are kept too: with six locals that hold the newer object, the receiver on
// the stack has the seventh, and it may be the older one that is closed.

class F {
    void read() {}
    void close() {}
    void free() {}
}

final class Main {
    static F make() {
        return new F();
    }

    public static void main(String[] words) {
        F a = make();
        F[] box = {a};
        F b = make();
        b.free();
        F c = b;
        F d = b;
        F e = b;
        F g = b;
        F h = b;
        h.close();
        a.read();
    }
}
