// A load takes along the fields behind its own, and a store puts its field before those of the value: the object is
// found behind two fields.

class F {
    void open() {}
    void read() {}
}

class Holder {
    F f;
}

class Outer {
    Holder inner;
}

final class Main {
    static F make() {
        return new F();
    }

    public static void main(String[] words) {
        Holder h = new Holder();
        Outer o = new Outer();
        make();
        F a = make();
        h.f = a;
        o.inner = h;
        o.inner.f.open();
        a.read();
    }
}
