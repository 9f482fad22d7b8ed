# A table of 16 words of 3 bits with contents, written on the rising edge, and one of 64 words of 2 bits, written on the
# falling edge. The words that are read go through an adder and a register.
attribute \top 1
module \tables
  wire input 1 \clk
  wire input 2 \we
  wire width 6 input 3 \wa
  wire width 3 input 4 \wd
  wire width 6 input 5 \ra
  attribute \init 3'000
  wire width 3 output 6 \sum
  wire width 3 \small
  wire width 2 \large
  wire width 3 \next
  cell $mem_v2 $small
    parameter \MEMID "\\small_table"
    parameter \SIZE 16
    parameter \OFFSET 0
    parameter \ABITS 4
    parameter \WIDTH 3
    parameter \INIT 48'xxxxxxxxxxxxxxxxxxxxxxxxxxxxxxxxxxxxxxx111010001
    parameter \RD_PORTS 1
    parameter \RD_CLK_ENABLE 1'0
    parameter \RD_CLK_POLARITY 1'0
    parameter \RD_TRANSPARENCY_MASK 1'0
    parameter \RD_COLLISION_X_MASK 1'0
    parameter \RD_WIDE_CONTINUATION 1'0
    parameter \RD_CE_OVER_SRST 1'0
    parameter \RD_ARST_VALUE 3'x
    parameter \RD_SRST_VALUE 3'x
    parameter \RD_INIT_VALUE 3'x
    parameter \WR_PORTS 1
    parameter \WR_CLK_ENABLE 1'1
    parameter \WR_CLK_POLARITY 1'1
    parameter \WR_PRIORITY_MASK 1'0
    parameter \WR_WIDE_CONTINUATION 1'0
    connect \RD_CLK 1'x
    connect \RD_EN 1'1
    connect \RD_ARST 1'0
    connect \RD_SRST 1'0
    connect \RD_ADDR \ra [3:0]
    connect \RD_DATA \small
    connect \WR_CLK \clk
    connect \WR_EN { \we \we \we }
    connect \WR_ADDR \wa [3:0]
    connect \WR_DATA \wd
  end
  cell $mem_v2 $large
    parameter \MEMID "\\large_table"
    parameter \SIZE 64
    parameter \OFFSET 0
    parameter \ABITS 6
    parameter \WIDTH 2
    parameter \INIT 128'x
    parameter \RD_PORTS 1
    parameter \RD_CLK_ENABLE 1'0
    parameter \RD_CLK_POLARITY 1'0
    parameter \RD_TRANSPARENCY_MASK 1'0
    parameter \RD_COLLISION_X_MASK 1'0
    parameter \RD_WIDE_CONTINUATION 1'0
    parameter \RD_CE_OVER_SRST 1'0
    parameter \RD_ARST_VALUE 2'x
    parameter \RD_SRST_VALUE 2'x
    parameter \RD_INIT_VALUE 2'x
    parameter \WR_PORTS 1
    parameter \WR_CLK_ENABLE 1'1
    parameter \WR_CLK_POLARITY 1'0
    parameter \WR_PRIORITY_MASK 1'0
    parameter \WR_WIDE_CONTINUATION 1'0
    connect \RD_CLK 1'x
    connect \RD_EN 1'1
    connect \RD_ARST 1'0
    connect \RD_SRST 1'0
    connect \RD_ADDR \ra
    connect \RD_DATA \large
    connect \WR_CLK \clk
    connect \WR_EN { \we \we }
    connect \WR_ADDR \wa
    connect \WR_DATA \wd [1:0]
  end
  cell $add $sum
    parameter \A_SIGNED 0
    parameter \A_WIDTH 3
    parameter \B_SIGNED 0
    parameter \B_WIDTH 2
    parameter \Y_WIDTH 3
    connect \A \small
    connect \B \large
    connect \Y \next
  end
  cell $dff $sum_register
    parameter \CLK_POLARITY 1
    parameter \WIDTH 3
    connect \CLK \clk
    connect \D \next
    connect \Q \sum
  end
end
