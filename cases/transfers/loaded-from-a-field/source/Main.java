// A load gives its target what the path through the field leads to: what is opened there is open.

class F {
    void open() {}
    void read() {}
}

class Holder {
    F f;
}

final class Main {
    static F make() {
        return new F();
    }

    public static void main(String[] words) {
        Holder h = new Holder();
        make();
        F a = make();
        h.f = a;
        h.f.open();
        a.read();
    }
}
