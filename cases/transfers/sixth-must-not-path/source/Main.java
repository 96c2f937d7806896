// Six paths that do not lead to the object are kept: five locals that hold the newer object, and the receiver on the
// stack. So it is not the older one that is closed.

class F {
    void read() {}
    void close() {}
    void free() {}
}

final class Main {
    static F make() {
        return new F();
    }

    public static void main(String[] words) {
        F a = make();
        F[] box = {a};
        F b = make();
        b.free();
        F c = b;
        F d = b;
        F e = b;
        F g = b;
        g.close();
        a.read();
    }
}
