// A seventh path of a set is dropped, the last in their order: with six locals that hold the object it is that of the
// receiver on the stack. So which object is opened is not known.

class F {
    void open() {}
    void read() {}
}

final class Main {
    static F make() {
        return new F();
    }

    public static void main(String[] words) {
        make();
        F a = make();
        F b = a;
        F c = a;
        F d = a;
        F e = a;
        F g = a;
        g.open();
        a.read();
    }
}
