// A store takes away all paths that hold its field, of any holder: the array has the same one, and what is opened is
// the other object.

class F {
    void open() {}
    void read() {}
}

class Holder {
    F f;
}

final class Main {
    static F make() {
        return new F();
    }

    public static void main(String[] words) {
        Holder h = new Holder();
        Holder[] holders = {h};
        F b = make();
        F a = make();
        h.f = a;
        holders[0].f = b;
        h.f.open();
        a.read();
    }
}
