// A parameter behind a long stands two slots further: there it has the paths of its argument.

class F {
    void open() {}
    void read() {}
}

final class Main {
    static F kept;

    static F make() {
        return new F();
    }

    static void open(long n, F f) {
        f.open();
        kept.read();
    }

    public static void main(String[] words) {
        make();
        F a = make();
        kept = a;
        open(1, a);
    }
}
