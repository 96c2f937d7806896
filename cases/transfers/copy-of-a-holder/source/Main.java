// A copy copies each path of its source, also those with fields: the field of the copied holder has the object.

class F {
    void open() {}
    void read() {}
}

class Holder {
    F f;
}

final class Main {
    static F make() {
        return new F();
    }

    public static void main(String[] words) {
        Holder h = new Holder();
        make();
        F a = make();
        h.f = a;
        Holder g = h;
        g.f.open();
        a.read();
    }
}
