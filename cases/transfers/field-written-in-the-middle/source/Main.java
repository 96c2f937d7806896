// A store takes away also the paths that go on behind its field: the outer object has another holder then, by the name
// that the array gives.

class F {
    void open() {}
    void read() {}
}

class Holder {
    F f;
}

class Outer {
    Holder inner;
}

final class Main {
    static F make() {
        return new F();
    }

    public static void main(String[] words) {
        Holder g = new Holder();
        Holder h = new Holder();
        Outer o = new Outer();
        Outer[] outers = {o};
        g.f = make();
        F a = make();
        h.f = a;
        o.inner = h;
        outers[0].inner = g;
        o.inner.f.open();
        a.read();
    }
}
