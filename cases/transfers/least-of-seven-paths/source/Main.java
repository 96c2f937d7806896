// Of seven paths the least are kept, and slots come before static fields: the first local still has the object after
// the path of the static field was dropped.

class F {
    void open() {}
    void read() {}
}

final class Main {
    static F kept;

    static F make() {
        return new F();
    }

    public static void main(String[] words) {
        make();
        F a = make();
        F b = a;
        F c = a;
        F d = a;
        F e = a;
        kept = a;
        F g = a;
        b = null;
        c = null;
        d = null;
        e = null;
        g = null;
        a.open();
        a.read();
    }
}
