// A static field takes along the paths with fields: what is opened behind it is open.

class F {
    void open() {}
    void read() {}
}

class Holder {
    F f;
}

final class Main {
    static Holder kept;

    static F make() {
        return new F();
    }

    public static void main(String[] words) {
        Holder h = new Holder();
        make();
        F a = make();
        h.f = a;
        kept = h;
        kept.f.open();
        a.read();
    }
}
