// After a call the paths of static fields are those of the callee: what it stored there is opened.

class F {
    void open() {}
    void read() {}
}

final class Main {
    static F kept;

    static F make() {
        return new F();
    }

    static void keep(F f) {
        kept = f;
    }

    public static void main(String[] words) {
        make();
        F a = make();
        keep(a);
        kept.open();
        a.read();
    }
}
