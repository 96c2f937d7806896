// A store gives the field to each local that has the same holder: the object is found by the other name.

class F {
    void open() {}
    void read() {}
}

class Holder {
    F f;
}

final class Main {
    static F make() {
        return new F();
    }

    public static void main(String[] words) {
        Holder h = new Holder();
        Holder g = h;
        make();
        F a = make();
        h.f = a;
        g.f.open();
        a.read();
    }
}
