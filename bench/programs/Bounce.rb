class Numbers
  def initialize
    @seed = 74755
  end

  def next
    @seed = (@seed * 1309 + 13849) & 65535
  end
end

class Ball
  def initialize(random)
    @x = random.next % 500
    @y = random.next % 500
    @x_speed = random.next % 300 - 150
    @y_speed = random.next % 300 - 150
  end

  def bounces?
    bounced = false
    @x += @x_speed
    @y += @y_speed
    if @x > 500
      @x = 500
      @x_speed = -@x_speed.abs
      bounced = true
    end
    if @x < 0
      @x = 0
      @x_speed = @x_speed.abs
      bounced = true
    end
    if @y > 500
      @y = 500
      @y_speed = -@y_speed.abs
      bounced = true
    end
    if @y < 0
      @y = 0
      @y_speed = @y_speed.abs
      bounced = true
    end
    bounced
  end
end

class Bounce
  def initialize
    random = Numbers.new
    @balls = Array.new(100) { Ball.new(random) }
  end

  def run
    bounces = 0
    50.times do
      @balls.each { |ball| bounces += 1 if ball.bounces? }
    end
    bounces
  end
end

result = nil
ARGV[0].to_i.times { result = Bounce.new.run }
puts result
