// Whether an event is on the object may be unknown: where it was, and where it was not, the last stage knows it of each
// local that has the receiver.

class F {
    void open() {}
    void read() {}
}

final class Main {
    static F make() {
        return new F();
    }

    public static void main(String[] words) {
        make();
        F[] box = {make()};
        F a = box[0];
        a.open();
        a.read();
    }
}
