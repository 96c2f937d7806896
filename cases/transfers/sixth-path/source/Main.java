// Six paths of a set are kept: five locals that hold the object, and the receiver on the stack. So what is opened by
// the last name is open.

class F {
    void open() {}
    void read() {}
}

final class Main {
    static F make() {
        return new F();
    }

    public static void main(String[] words) {
        make();
        F a = make();
        F b = a;
        F c = a;
        F d = a;
        F e = a;
        e.open();
        a.read();
    }
}
