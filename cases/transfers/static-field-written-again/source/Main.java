// The paths of a static field leave when it is written: what is opened there is the other object.

class F {
    void open() {}
    void read() {}
}

final class Main {
    static F kept;

    static F make() {
        return new F();
    }

    public static void main(String[] words) {
        F b = make();
        F a = make();
        kept = a;
        kept = b;
        kept.open();
        a.read();
    }
}
