// The paths are counted after an event too, before the method is entered: five locals, and two more slots that are then
// known to have the receiver, are seven, and that of the receiver itself is dropped.

class F {
    void open() {
        close();
    }

    void close() {}
}

final class Main {
    static F make() {
        return new F();
    }

    public static void main(String[] words) {
        F[] box = new F[1];
        make();
        F a = make();
        F b = a;
        F c = a;
        F d = a;
        F e = a;
        box[0] = a;
        F g = box[0];
        g.open();
        g.open();
    }
}
