// A static field is copied to and from: what is opened there is open.

class F {
    void open() {}
    void read() {}
}

final class Main {
    static F kept;

    static F make() {
        return new F();
    }

    public static void main(String[] words) {
        make();
        F a = make();
        kept = a;
        kept.open();
        a.read();
    }
}
