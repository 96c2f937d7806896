// A result that a stub says is the receiver gets the receiver's paths: what is opened there is open.

class F extends Base {
    void open() {}
    void read() {}
}

final class Main {
    static F make() {
        return new F();
    }

    public static void main(String[] words) {
        make();
        F a = make();
        a.self().open();
        a.read();
    }
}
