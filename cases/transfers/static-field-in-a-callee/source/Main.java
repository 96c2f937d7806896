// The paths of static fields are the same in a callee: it finds the object there.

class F {
    void open() {}
    void read() {}
}

final class Main {
    static F kept;

    static F make() {
        return new F();
    }

    static void use(F f) {
        kept.open();
        f.read();
    }

    public static void main(String[] words) {
        make();
        F a = make();
        kept = a;
        use(a);
    }
}
