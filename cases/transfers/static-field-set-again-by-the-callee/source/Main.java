// After a call the caller's own paths of static fields are gone: the callee stored another object there.

class F {
    void open() {}
    void read() {}
}

final class Main {
    static F kept;

    static F make() {
        return new F();
    }

    static void keep(F f) {
        kept = f;
    }

    public static void main(String[] words) {
        F b = make();
        F a = make();
        kept = a;
        keep(b);
        kept.open();
        a.read();
    }
}
