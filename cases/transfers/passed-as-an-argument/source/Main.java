// A parameter has the paths of its argument: what the callee opens is what the static field has.

class F {
    void open() {}
    void read() {}
}

final class Main {
    static F kept;

    static F make() {
        return new F();
    }

    static void open(F f) {
        f.open();
        kept.read();
    }

    public static void main(String[] words) {
        make();
        F a = make();
        kept = a;
        open(a);
    }
}
