// A result that a stub says is an argument gets the paths of that argument: what is opened there is open.

class F {
    void open() {}
    void read() {}
}

final class Main {
    static F make() {
        return new F();
    }

    public static void main(String[] words) {
        make();
        F a = make();
        Lib.same(a).open();
        a.read();
    }
}
