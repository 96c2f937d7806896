// A path through a field is gone after an initialiser that may write the field: what is opened there is the other
// object.

class F {
    void open() {}
    void read() {}
}

class Holder {
    F f;
}

class Starter {
    static {
        Main.kept.f = Main.other;
    }

    static void start() {}
}

final class Main {
    static Holder kept;
    static F other;

    static F make() {
        return new F();
    }

    public static void main(String[] words) {
        Holder h = new Holder();
        kept = h;
        other = make();
        F a = make();
        h.f = a;
        Starter.start();
        h.f.open();
        a.read();
    }
}
