// A parameter has also the paths with fields of its argument: the callee finds the object in the holder.

class F {
    void open() {}
    void read() {}
}

class Holder {
    F f;
}

final class Main {
    static F make() {
        return new F();
    }

    static void use(Holder h, F g) {
        h.f.open();
        g.read();
    }

    public static void main(String[] words) {
        Holder h = new Holder();
        make();
        F a = make();
        h.f = a;
        use(h, a);
    }
}
