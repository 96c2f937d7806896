// A result that a stub has kept adds no path: what is opened there may be another object.

class F {
    void open() {}
    void read() {}
}

final class Main {
    static F make() {
        return new F();
    }

    public static void main(String[] words) {
        make();
        F a = make();
        Lib.keep(a);
        Lib.give().open();
        a.read();
    }
}
